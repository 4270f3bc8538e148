"""The sheets of a problem, and their columns. docs/TOOLS.md says what stands in them."""

TERM, ROOMS, TRAVEL, CLOSED = "term.csv", "rooms.csv", "travel.csv", "closed.csv"
CLASSES, TIMES, RULES, STUDENTS = "classes.csv", "times.csv", "rules.csv", "students.csv"

# The columns that a sheet has, and those that it may have.
COLUMNS = {
    TERM: ("what,value", ""),
    ROOMS: ("room", "name,capacity"),
    TRAVEL: ("room,to,slots", ""),
    CLOSED: ("room,days,begin,end", "weeks"),
    CLASSES: ("course,class,times", "course name,configuration,configuration name,subpart,subpart name,class name,seats,parent,rooms"),
    TIMES: ("times,days,begin,end", "weeks,penalty"),
    RULES: ("type,classes", "rule,required,penalty"),
    STUDENTS: ("student,courses", "name"),
}
MAY_BE_ABSENT = (TRAVEL, CLOSED, RULES, STUDENTS)

# The lines of the sheet of the term, and where in the problem their numbers stand.
TERM_NUMBERS = {"days": "nrDays", "weeks": "nrWeeks", "slots a day": "slotsPerDay"}
TERM_WEIGHTS = {"weight of times": "time", "weight of rooms": "room", "weight of rules": "distribution", "weight of students": "student"}

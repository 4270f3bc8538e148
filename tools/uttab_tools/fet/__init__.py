"""Files of FET, the timetable generator of schools: an institution becomes a problem, a published timetable goes back."""

"""A page on a running desk: a timetabler's day at `uttab run PROBLEM -`, in a browser."""

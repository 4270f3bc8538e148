"""A problem as sheets, which any spreadsheet opens: one CSV file for each kind of thing."""

"""Commands around the desk: what an office has beside `uttab`."""

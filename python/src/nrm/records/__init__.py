"""Files of people: logs, exports, sales, timetables and network files, and the demand estimated from them."""

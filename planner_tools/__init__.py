"""The front end of the planner: what it says to people beside the proved program, and its commands for real switches
and for the page. It decides nothing: each verdict, and each byte that changes a table, is the program's."""

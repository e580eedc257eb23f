"""One command from the tables that the switches have to those that are wanted."""

"""A page that shows what a plan does."""

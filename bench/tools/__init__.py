"""What figures, models and looks share, and scripts that are run by hand."""

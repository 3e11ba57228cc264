"""What `./pide` does: it runs the proved program, proves and builds it first where that isn't done, or tries it unproved."""

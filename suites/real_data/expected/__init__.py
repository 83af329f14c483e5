"""What the program has to answer, made from Git's own words."""

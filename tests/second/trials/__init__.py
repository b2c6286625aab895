"""What holds the second desk against the program: random and fixed calls, the three ways in which they are made, and shrinking."""

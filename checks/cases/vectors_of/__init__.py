"""The cases of vectors/: for each command what is right, what fails and where, and why. `maker` adds them in order."""

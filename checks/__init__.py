"""What tests and attacks the program, its tools and the documents."""

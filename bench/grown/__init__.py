"""What `bench/inputs` grows: the texts of each input, and the calls of each tool that read them."""

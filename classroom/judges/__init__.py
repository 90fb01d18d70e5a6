"""What `classroom/check` asks of each piece of work. A judge is given a file, and says what is wrong, or nothing."""

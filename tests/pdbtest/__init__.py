"""What the scripts in tests/ share: reports, tools and programs, files and their readers, questions and damage."""

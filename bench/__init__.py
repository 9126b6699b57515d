"""Scripts and models beside the proved programs: figures measure, models answer as the rules say, looks compare the two, and tools are
what these share. docs/TESTING.md has what is where."""

"""What the command fretmere is made of. The proved programs do the work; these modules find them, feed them and show what they say."""

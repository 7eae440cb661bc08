"""What stands around the reasoner. Nothing here is proved, and the program reads nothing that is printed here."""

"""A service around `wagons run`: lines come over a network, and each reply goes back as the program gave it."""

"""A filed plan: a folder with the deck, the program's answer, the certificate, the controller's sheet, the page."""

"""Moving an agency in: its files, its lists, its feed and its riders, read and sent to the desk."""

"""Weekly trips of riders, booked each night."""

"""What a reviewer of the Federal Transit Administration asks of a month: trips, denials, no-shows and missed trips."""

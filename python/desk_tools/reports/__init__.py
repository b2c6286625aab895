"""What people read of a copy of the desk's file and of the site's log: what waits, figures, trips, invoices."""

"""Shows match records as pages, explains why they are not lawful, checks them in parallel, and collects them in tables."""

"""The agency's letters: their sentences, and the forms in which people ask for them (49 CFR 37.125(b))."""

"""What a recording gives: footprints of recipes, and what has to be said of them."""

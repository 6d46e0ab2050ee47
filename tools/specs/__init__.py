"""The definitions in specs/, and the page about them."""

"""The command ./rack. What decides anything is proved code, in crates/; this only asks it and prints."""

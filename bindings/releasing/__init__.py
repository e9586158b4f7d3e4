"""What `../../release` does: which checkout may be released, what is built of it, each kind of package, the receipt, comparing a
release with a checkout, and trying it where no kit is."""

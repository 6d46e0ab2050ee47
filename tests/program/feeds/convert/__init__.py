"""The command `onixdesk convert`: its options, its files, its output and its lines."""

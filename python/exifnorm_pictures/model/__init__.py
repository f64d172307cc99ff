"""What all other folders share: the records of pictures and blocks, results, errors, budgets, and texts that are safe to print."""

"""Wrong bodies: which there are, which are due, and what the prover says of them."""

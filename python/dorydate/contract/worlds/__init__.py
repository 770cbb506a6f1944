"""Random networks of hosts that keep the contract, with programs and strangers, and the promise among them."""

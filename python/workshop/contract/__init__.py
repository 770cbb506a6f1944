"""Own logs, judged by the definitions of the contract and by `dorydate keeps`."""

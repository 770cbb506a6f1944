"""A second reader of the promise: the evaluator of the definitions over all worked rows, beside the audit, and Agda."""

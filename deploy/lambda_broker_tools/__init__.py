"""What `lambda-broker-ctl`, `supervise` and `lambda_forward` are made of: `ctl`, `supervise` and `forward`."""

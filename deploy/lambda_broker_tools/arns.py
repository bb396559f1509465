"""ARNs of what takes records: queues, topics, functions and event buses."""

# What stands behind arn:PARTITION:SERVICE:REGION:ACCOUNT: of what takes records. AWS has no queue or topic of the kind FIFO here.
RESOURCES = {"sqs": "[A-Za-z0-9_-]{1,80}", "sns": "[A-Za-z0-9_-]{1,256}", "events": "event-bus/[./A-Za-z0-9_-]{1,256}"}
RESOURCES |= {"lambda": r"function:[A-Za-z0-9_-]{1,64}(?::(?:\$LATEST|[A-Za-z0-9_-]{1,128}))?"}
ARN = "arn:aws[a-z-]*:({}):([a-z0-9-]+):([0-9]{{12}}):({})"

# The prices of a shop are decided elsewhere: the head office has the same update made in every shop, and lets it come into force
# once all are prepared. Process 1 is its agent in this shop, process 2 a till.

# The prices that are in force.
p1 CreateFile h1 "\prices" w - CREATE_NEW
p1 WriteFile h1 0 6f6c64
p1 CloseHandle h1

# The agent enlists as the superior of a transaction: from here on it is the agent that decides. Its resource manager is durable,
# and with its enlistment it leaves the number that the update has at the head office.
p1 CreateResourceManager h1 durable
p1 CreateTransaction h2 0
p1 CreateEnlistment h3 h1 h2 superior
p1 SetEnlistmentRecoveryInformation h3 07
p1 CreateFileTransacted h4 "\prices" rw - OPEN_EXISTING h2
p1 WriteFile h4 0 6e6577
p1 KvSet h2 "update" 07

# It asks that the transaction prepares. What it changed and set is recorded, and from here on it can commit and can roll back,
# whatever stops the machine.
p1 PrepareEnlistment h3
p1 GetNotificationResourceManager h1
p1 GetTransactionInformation h2

# The power goes before the head office has decided. The transaction is in doubt.
crash
restart 1

# The old prices are in force. Nobody can change them, nor the key, since the transaction still holds what it changed; and
# however long it takes, its time does not run out.
p2 CreateFile h1 "\prices" r rw OPEN_EXISTING
p2 ReadFile h1 0 8
p2 CreateFile h2 "\prices" w rw OPEN_EXISTING
p2 CreateTransaction h3 0
p2 KvSet h3 "update" 08
p2 KvGet - "update"
tick 4000000000

# The agent comes back, and finds what it has left to decide.
p1 OpenResourceManager h1 00000001-0002-0001-0000-000000000001
p1 RecoverResourceManager h1
p1 GetNotificationResourceManager h1
p1 GetNotificationResourceManager h1
p1 OpenEnlistment h3 h1 00000001-0003-0001-0000-000000000001
p1 GetEnlistmentRecoveryInformation h3
p1 RecoverEnlistment h3
p1 GetNotificationResourceManager h1

# The power goes again, and the transaction waits over this restart too.
crash
restart 2
p1 OpenResourceManager h1 00000001-0002-0001-0000-000000000001
p1 OpenEnlistment h3 h1 00000001-0003-0001-0000-000000000001
p1 RecoverEnlistment h3
p1 GetNotificationResourceManager h1

# The head office says that all shops are prepared. The new prices come into force, with the key.
p1 CommitEnlistment h3
p1 GetNotificationResourceManager h1
p2 CreateFile h1 "\prices" r rw OPEN_EXISTING
p2 ReadFile h1 0 8
p2 KvGet - "update"

# It is over: nothing is in doubt after the next restart, and the agent finds nothing.
crash
restart 3
p1 OpenResourceManager h1 00000001-0002-0001-0000-000000000001
p1 RecoverResourceManager h1
p1 GetNotificationResourceManager h1

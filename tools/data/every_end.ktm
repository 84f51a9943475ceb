# A transaction of each end, and what meets the holds of others.
p1 CreateResourceManager h1 durable
p1 CreateTransaction h2 0
p1 CreateFileTransacted h3 "\a file with a name that is long" rw - CREATE_NEW h2
p1 KvSet h2 "alpha" 01
p2 CreateTransaction h1 500
p2 KvSet h1 "beta" 02
p2 KvSet h1 "alpha" 02
p2 CreateFile h2 "\A FILE WITH A NAME THAT IS LONG" w - CREATE_NEW
p1 CommitTransaction h2
p2 CreateFile h2 "\a file with a name that is long" r r OPEN_EXISTING

# A timeout, a last handle that is closed, and one that is not the last.
tick 499
tick 1
p2 GetTransactionInformation h1
p2 CreateTransaction h3 0
p3 DuplicateHandle h9 p2 h3
p2 CloseHandle h3
p3 KvSet h9 "gamma" -
p3 exit

# A commit in one phase that is rejected, with a vote and a power cut in the last one; the number keeps it.
p1 CreateTransaction h4 0
p1 CreateEnlistment h5 h1 h4 both
p1 CommitTransaction h4
p1 GetNotificationResourceManager h1
p1 PrePrepareComplete h5
p1 GetNotificationResourceManager h1
p1 SinglePhaseReject h5
p1 GetNotificationResourceManager h1
cut 3
p1 PrepareComplete h5
restart 2
p1 OpenResourceManager h1 00000001-0002-0001-0000-000000000001
p1 OpenEnlistment h5 h1 00000001-0003-0001-0000-000000000001
p1 RecoverEnlistment h5
p1 GetNotificationResourceManager h1
p1 CommitComplete h5

# At the end one transaction is in doubt, and one is active.
p1 CreateTransaction h6 0
p1 CreateEnlistment h7 h1 h6 superior
p1 KvSet h6 "delta" 03
p1 PrepareEnlistment h7
crash
restart 1
p2 CreateTransaction h1 0
p2 KvSet h1 "delta" 04
p2 KvSet h1 "epsilon" 04
a bad line

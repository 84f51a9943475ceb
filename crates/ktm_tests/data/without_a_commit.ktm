# A transaction ends without a commit in four ways. What it set is gone then, and its keys are free.
p1 CreateTransaction h1 0
p1 KvSet h1 "color" 726564
p1 RollbackTransaction h1
p1 GetTransactionInformation h1

# Its timeout is reached: time passes in lines of its own, in milliseconds.
p1 CreateTransaction h2 500
p1 KvSet h2 "color" 726564
tick 499
p1 KvGet h2 "color"
tick 1
p1 KvGet h2 "color"

# Its last handle is closed. A second process has a handle too, so the transaction outlives the first one.
p1 CreateTransaction h3 0
p2 DuplicateHandle h1 p1 h3
p1 CloseHandle h3
p2 KvSet h1 "color" 726564
p2 OpenTransaction h2 00000001-0001-0001-0000-000000000003
p2 CloseHandle h1
p2 GetTransactionInformation h2
p2 CloseHandle h2
p2 OpenTransaction h2 00000001-0001-0001-0000-000000000003

# Its process ends, and all handles of the process are closed.
p2 CreateTransaction h3 0
p2 KvSet h3 "color" 626c7565
p2 exit
p1 KvList -

# What has committed is not undone by any of them.
p1 CreateTransaction h4 500
p1 KvSet h4 "color" 626c7565
p1 CommitTransaction h4
tick 500
p1 exit
p1 KvGet - "color"

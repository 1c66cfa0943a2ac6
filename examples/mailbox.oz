% Many senders and one receiver: a cell holds the end of a stream, and each sender exchanges it for a new end.
local NewMailbox Send Receive Mailbox Stream in
  fun {NewMailbox Stream} {NewCell Stream} end
  proc {Send Mailbox Message}
    local End New in
      {Exchange Mailbox End New}
      End = Message|New
    end
  end
  % sums so many messages
  fun {Receive N Xs State}
    if N =< 0 then State
    else
      case Xs of X|Xr then {Receive N - 1 Xr State + X}
      else none end
    end
  end
  Mailbox = {NewMailbox Stream}
  thread {Send Mailbox 1} end
  thread {Send Mailbox 20} end
  thread {Send Mailbox 300} end
  {Browse {Receive 3 Stream 0}}
end

% Many senders and one receiver: a cell holds the end of a stream, and each sender exchanges it for a new end.
local NewMailbox Send Receive Mailbox Stream Zero One Three Nil Total in
  Zero = 0  One = 1  Three = 3  Nil = nil
  proc {NewMailbox Stream ?Mailbox} {NewCell Stream Mailbox} end
  proc {Send Mailbox Message}
    local End New in
      {Exchange Mailbox End New}
      End = Message|New
    end
  end
  % sums so many messages
  proc {Receive N Xs State ?Total}
    local Ends in
      Ends = N =< Zero
      if Ends then Total = State
      else
        case Xs of X|Xr then
          local Less Next in
            Less = N - One
            Next = State + X
            {Receive Less Xr Next Total}
          end
        else skip end
      end
    end
  end
  {NewMailbox Stream Mailbox}
  thread local M in M = 1 {Send Mailbox M} end end
  thread local M in M = 20 {Send Mailbox M} end end
  thread local M in M = 300 {Send Mailbox M} end end
  {Receive Three Stream Zero Total}
  {Browse Total}
end

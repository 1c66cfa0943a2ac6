% CTM 5.1: many senders at many sites and one receiver: the messages of a port stand in one stream, in some order.
local Port Messages SendAll Sum in
  Port = {NewPort Messages}
  proc {SendAll N}
    if N > 0 then {Send Port N}  {SendAll N - 1} else skip end
  end
  fun {Sum N Messages Sofar}
    if N =< 0 then Sofar
    else
      case Messages of M|More then {Sum N - 1 More Sofar + M} else none end
    end
  end
  thread at 2 {SendAll 10} end
  thread at 3 {SendAll 10} end
  thread at 4 {SendAll 10} end
  {Browse {Sum 30 Messages 0}}
end

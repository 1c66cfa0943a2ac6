% CTM 5.2.1: a port object is a thread that reads the stream of a port, and keeps a state from message to message. Here a balance,
% which it tells to who asks, until it is told to stop.
local NewPortObject Serve Take Account First M1 M2 M3 Stop Told in
  proc {Serve Take Messages State}
    case Messages of Message|More then
      case Message of stop then skip
      else
        local Next in
          {Take Message State Next}
          {Serve Take More Next}
        end
      end
    else skip end
  end
  proc {NewPortObject Take First ?Port}
    local Messages in
      {NewPort Messages Port}
      thread at 2 {Serve Take Messages First} end
    end
  end
  proc {Take Message Balance ?Next}
    case Message of pay(Amount) then Next = Balance + Amount
    else
      case Message of ask(Told) then
        Told = Balance
        Next = Balance
      else Next = Balance end
    end
  end
  First = 100
  {NewPortObject Take First Account}
  local Paid in Paid = 20  M1 = pay(Paid)  {Send Account M1} end
  local Paid in Paid = ~50  M2 = pay(Paid)  {Send Account M2} end
  M3 = ask(Told)  {Send Account M3}
  Stop = stop  {Send Account Stop}
  {Browse Told}
end

% CTM 5.2.1: a port object is a thread that reads the stream of a port, and keeps a state from message to message. Here a balance,
% which it tells to who asks, until it is told to stop.
local NewPortObject Serve Take Account Told in
  proc {Serve Take Messages State}
    case Messages of Message|More then
      case Message of stop then skip
      else {Serve Take More {Take Message State}} end
    else skip end
  end
  proc {NewPortObject Take First ?Port}
    local Messages in
      Port = {NewPort Messages}
      thread at 2 {Serve Take Messages First} end
    end
  end
  proc {Take Message Balance ?Next}
    case Message of pay(Amount) then Next = Balance + Amount
    [] ask(Told) then Told = Balance  Next = Balance
    else Next = Balance end
  end
  Account = {NewPortObject Take 100}
  {Send Account pay(20)}
  {Send Account pay(~50)}
  {Send Account ask(Told)}
  {Send Account stop}
  {Browse Told}
end

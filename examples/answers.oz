% CTM 5.3.2: a message with a port in it asks for an answer, which comes to that port: so the two share no variable of a message.
local Server Serve Requests Client Answers in
  Server = {NewPort Requests}
  proc {Serve Requests}
    case Requests of Request|More then
      case Request of square(N From) then {Send From N * N}  {Serve More}
      else skip end
    else skip end
  end
  thread at 2 {Serve Requests} end
  Client = {NewPort Answers}
  {Send Server square(7 Client)}
  {Send Server square(12 Client)}
  {Send Server stop}
  case Answers of First|More then
    {Browse First}
    case More of Second|Rest then {Browse Second} else skip end
  else skip end
end

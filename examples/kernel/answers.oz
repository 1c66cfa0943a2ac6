% CTM 5.3.2: a message with a port in it asks for an answer, which comes to that port: so the two share no variable of a message.
local Server Serve Requests Client Answers Seven Twelve Q1 Q2 Stop in
  Seven = 7  Twelve = 12
  {NewPort Requests Server}
  proc {Serve Requests}
    case Requests of Request|More then
      case Request of square(N From) then
        local Square in
          Square = N * N
          {Send From Square}
          {Serve More}
        end
      else skip end
    else skip end
  end
  thread at 2 {Serve Requests} end
  {NewPort Answers Client}
  Q1 = square(Seven Client)  {Send Server Q1}
  Q2 = square(Twelve Client)  {Send Server Q2}
  Stop = stop  {Send Server Stop}
  case Answers of First|More then
    {Browse First}
    case More of Second|Rest then {Browse Second} else skip end
  else skip end
end

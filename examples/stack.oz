% A stack with state: a cell holds the list of what was pushed. Popping an empty stack raises an exception.
local MakeStack S Push Pop in
  proc {MakeStack ?Stack}
    local C Push Pop in
      C = {NewCell nil}
      proc {Push X}
        local Old in {Exchange C Old X|Old} end
      end
      proc {Pop ?X}
        local Old New in
          {Exchange C Old New}
          case Old of H|T then X = H  New = T
          else
            New = Old
            raise empty end
          end
        end
      end
      Stack = stack(pop:Pop push:Push)
    end
  end
  S = {MakeStack}
  Push = S.push
  Pop = S.pop
  {Push a}
  {Push b}
  {Browse {Pop}}
  {Browse {Pop}}
  try {Browse {Pop}} catch E then {Browse E} end
end

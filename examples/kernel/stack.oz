% A stack with state: a cell holds the list of what was pushed. Popping an empty stack raises an exception.
local MakeStack A B S Push Pop X Y Z in
  A = a  B = b
  proc {MakeStack ?Stack}
    local C Nil Push Pop in
      Nil = nil
      {NewCell Nil C}
      proc {Push X}
        local Old New in
          {Exchange C Old New}
          New = X|Old
        end
      end
      proc {Pop ?X}
        local Old New in
          {Exchange C Old New}
          case Old of H|T then X = H New = T
          else
            local Empty in
              New = Old
              Empty = empty
              raise Empty end
            end
          end
        end
      end
      Stack = stack(pop:Pop push:Push)
    end
  end
  {MakeStack S}
  Push = S.push
  Pop = S.pop
  {Push A}
  {Push B}
  {Pop X}
  {Browse X}
  {Pop Y}
  {Browse Y}
  try {Pop Z} catch E then {Browse E} end
end

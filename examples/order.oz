% Binding is independent of order: Left and Right are the same before anybody knows what they are.
local Left Right Same in
  Left = Same
  Right = Same
  Same = done
  {Browse Left}
  {Browse Right}
end

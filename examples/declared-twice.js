let total = 0;
{
  var total = 1;
}

debugger;
a;
{debugger;}

--  two_ends.adb - what pair.c does, in Ada: an engine and a radio block centre in one process, wired to each other. Moments
--  and random numbers are made up, which a product must not do.
--
--     gnatmake two_ends.adb -largs euroradio_heap.o liber_end_c.a

with Ada.Command_Line;
with Ada.Text_IO;  use Ada.Text_IO;
with Euroradio;    use Euroradio;
with Interfaces;   use Interfaces;
with Interfaces.C; use Interfaces.C;

procedure Two_Ends is

   The_Engine : constant Etcs_Number := 5;
   The_Centre : constant Etcs_Number := 9;

   Their_Kmac : constant Kmac := (16#0123456789abcdef#, 16#23456789abcdef01#, 16#456789abcdef0123#);

   Text : constant String := "a position report";

   type Line is record
      Sent  : Octets (0 .. Out_Most - 1) := (others => 0);
      Count : size_t                     := 0;
   end record;

   type Side is limited record
      Here : Handle;
      Its  : Line;  --  what it sent, and the other end hasn't read
   end record;

   Engine, Centre : Side;
   Read_Now       : Line;
   Now            : Moment  := 1_000;
   Told           : Deeds;
   Is_Right       : Boolean := True;

   procedure Check (Got, Wanted : Status) is
   begin
      if Got /= Wanted then
         Put_Line ("a call answers" & Status'Image (Got));
         Is_Right := False;
      end if;
   end Check;

   --  The octets that an event sent go to the line.
   procedure Put (It : in out Side; By_Event : Deeds) is
   begin
      It.Its.Count :=
        It.Its.Count + Copy_Out (It.Here, 0, It.Its.Sent (It.Its.Count .. Out_Most - 1), By_Event.Out_Count);
   end Put;

   --  What an event came to: a message is taken at once, which is an event of its own.
   procedure Did (Name : String; It : in out Side) is
      Message : Octets (0 .. Message_Most - 1);
      Taken   : Deeds;
      Count   : size_t;
   begin
      Put (It, Told);
      if Told.Connected = 1 then
         Put_Line ("the " & Name & " is connected with" & Unsigned_32'Image (Told.Peer));
      end if;
      if Told.Released = 1 then
         Put_Line
           ("the " & Name & " is released: reason" & Unsigned_8'Image (Told.Reason) & ", sub-reason"
            & Unsigned_8'Image (Told.Sub)
            & (if Told.By_Peer = 1 then " by its peer" else " by itself"));
      end if;
      if Told.Message > 0 then
         Check (Take (It.Here, Now, Taken), OK);
         Count := Copy_Taken (It.Here, Message, Message'Length);
         Put_Line ("the " & Name & " takes" & size_t'Image (Count) & " octets");
         Is_Right := Is_Right and then Count = Text'Length;
         Put (It, Taken);
      end if;
   end Did;

   --  Gives an end all that the other sent, frame by frame.
   procedure Read_All (Name : String; Reader, Writer : in out Side) is
      Used : size_t := 0;
   begin
      Read_Now         := Writer.Its;
      Writer.Its.Count := 0;
      while Used < Read_Now.Count loop
         Check
           (Come (Reader.Here, Now, Read_Now.Sent (Used .. Read_Now.Count - 1), Read_Now.Count - Used, Told), OK);
         Used := Used + Told.Used;
         Did (Name, Reader);
      end loop;
   end Read_All;

   procedure Run is
   begin
      while Engine.Its.Count > 0 or else Centre.Its.Count > 0 loop
         Now := Now + 1;
         Read_All ("centre", Centre, Engine);
         Read_All ("engine", Engine, Centre);
      end loop;
   end Run;

   Usual : Settings;
   Known : constant Keys (0 .. 0) :=
     (0 => (Engine => The_Engine, Rbc => The_Centre, First => 0, Last => Moment_Most, Their_Kmac => Their_Kmac));
   Words : Octets (0 .. Text'Length - 1);

begin
   for At_Place in Words'Range loop
      Words (At_Place) := Character'Pos (Text (Text'First + Integer (At_Place)));
   end loop;
   Is_Right := Version = Version_Of_Binding;
   Check (Call (Engine.Here, Usual, The_Engine, The_Centre, Their_Kmac, 16#0102030405060708#, Now), OK);
   Check (Answer_Keys (Centre.Here, Usual, The_Centre, Known, Known'Length, 16#1122334455667788#, Now), OK);

   Check (Start (Engine.Here, Now, Told), OK);
   Did ("engine", Engine);
   Run;

   Check (Send (Engine.Here, Now, Words, Words'Length, Told), OK);
   Did ("engine", Engine);
   Run;

   Check (Release (Engine.Here, Now, 0, Told), OK);
   Did ("engine", Engine);
   Run;

   Check (Is_Released (Centre.Here, Told), OK);
   Is_Right := Is_Right and then Told.By_Peer = 1;
   Free (Engine.Here);
   Free (Centre.Here);
   Check (Is_Released (Centre.Here, Told), Closed);
   Ada.Command_Line.Set_Exit_Status
     (if Is_Right then Ada.Command_Line.Success else Ada.Command_Line.Failure);
end Two_Ends;

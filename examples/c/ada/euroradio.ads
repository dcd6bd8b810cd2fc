--  euroradio.ads - the calls of include/euroradio.h for programs in Ada 2012, one to one. That header says what each call
--  does, answers and wants; what it calls a pointer and a length is an array and its length here.
--
--  A Handle is limited, so that no program makes a second copy of one, and holds no end as soon as it is declared.

with Interfaces;   use Interfaces;
with Interfaces.C; use Interfaces.C;
with System;

package Euroradio is

   pragma Preelaborate;

   type Handle is limited private;

   subtype Status is Integer_32;

   OK            : constant Status := 0;
   Released      : constant Status := 1;
   Not_Connected : constant Status := 2;
   Bad_Length    : constant Status := 3;
   Full          : constant Status := 4;
   None          : constant Status := 5;
   Closed        : constant Status := -1;
   Already_Open  : constant Status := -2;
   Bad_Moment    : constant Status := -3;
   Bad_Number    : constant Status := -4;
   Bad_Setting   : constant Status := -5;
   Bad_Keys      : constant Status := -6;
   No_Memory     : constant Status := -7;
   Bad_Start     : constant Status := -8;

   Version_Of_Binding : constant Unsigned_32 := 201;
   Message_Most       : constant := 1_023;
   Out_Most           : constant := 200_208;
   Waiting_Most       : constant := 15;
   Unsent_Most        : constant := 16;
   Moment_Most        : constant Unsigned_64 := 1_000_000_000_000_000;

   subtype Moment is Unsigned_64;
   subtype Etcs_Number is Unsigned_32 range 0 .. 2 ** 24 - 1;

   type Octets is array (size_t range <>) of aliased Unsigned_8 with Convention => C;

   type Kmac is array (0 .. 2) of Unsigned_64 with Convention => C;

   type Kmac_Octets is array (0 .. 23) of Unsigned_8 with Convention => C;

   type Settings is record
      Window : Unsigned_32 := 7;
      Credit : Unsigned_32 := 15;
      Size   : Unsigned_32 := 128;
      T1     : Unsigned_32 := 1_000;
      N2     : Unsigned_32 := 5;
      Setup  : Unsigned_32 := 40_000;
      Modulo : Unsigned_32 := 8;
   end record with Convention => C;

   type Key is record
      Engine     : Unsigned_32;
      Rbc        : Unsigned_32;
      First      : Moment := 0;
      Last       : Moment := Moment_Most;
      Their_Kmac : Kmac;
   end record with Convention => C;

   type Keys is array (size_t range <>) of aliased Key with Convention => C;

   type Deeds is record
      Out_Count : size_t;
      Used      : size_t;
      Message   : size_t;
      Connected : Unsigned_32;
      Peer      : Unsigned_32;
      Released  : Unsigned_32;
      Reason    : Unsigned_8;
      Sub       : Unsigned_8;
      By_Peer   : Unsigned_8;
      Back      : Unsigned_8;
   end record with Convention => C;

   type Counts is record
      Bad_Fcs   : Unsigned_64;
      Too_Short : Unsigned_64;
      Too_Long  : Unsigned_64;
      Aborted   : Unsigned_64;
      Stray     : Unsigned_64;
   end record with Convention => C;

   type Key_Fault is record
      Kind  : Unsigned_32;
      Field : Unsigned_32;
      Item  : size_t;
      Other : size_t;
   end record with Convention => C;

   function Version return Unsigned_32
     with Import, Convention => C, External_Name => "euroradio_version";

   function Kmac_From (Spelled : Kmac_Octets; Made : in out Kmac) return Status
     with Import, Convention => C, External_Name => "euroradio_kmac";

   function Judge_Key_File (Key_File : Octets; Length : size_t; Told : out Key_Fault) return Status
     with Import, Convention => C, External_Name => "euroradio_key_file";

   function Call
     (The_End : in out Handle; With_Settings : Settings; Me, Peer : Etcs_Number; Their_Kmac : Kmac;
      Rb : Unsigned_64; Now : Moment) return Status
     with Import, Convention => C, External_Name => "euroradio_call";

   function Answer
     (The_End : in out Handle; With_Settings : Settings; Me : Etcs_Number; Key_File : Octets; Length : size_t;
      Ra : Unsigned_64; Now : Moment) return Status
     with Import, Convention => C, External_Name => "euroradio_answer";

   function Answer_Keys
     (The_End : in out Handle; With_Settings : Settings; Me : Etcs_Number; Known : Keys; Count : size_t;
      Ra : Unsigned_64; Now : Moment) return Status
     with Import, Convention => C, External_Name => "euroradio_answer_keys";

   procedure Free (The_End : in out Handle)
     with Import, Convention => C, External_Name => "euroradio_end_free";

   function Start (The_End : in out Handle; Now : Moment; Told : out Deeds) return Status
     with Import, Convention => C, External_Name => "euroradio_start";

   function Come
     (The_End : in out Handle; Now : Moment; Piece : Octets; Length : size_t; Told : out Deeds) return Status
     with Import, Convention => C, External_Name => "euroradio_octets";

   function Send
     (The_End : in out Handle; Now : Moment; Text : Octets; Length : size_t; Told : out Deeds) return Status
     with Import, Convention => C, External_Name => "euroradio_send";

   function Take (The_End : in out Handle; Now : Moment; Told : out Deeds) return Status
     with Import, Convention => C, External_Name => "euroradio_take";

   function Release (The_End : in out Handle; Now : Moment; Sub : Unsigned_8; Told : out Deeds) return Status
     with Import, Convention => C, External_Name => "euroradio_release";

   function Tick (The_End : in out Handle; Now : Moment; Told : out Deeds) return Status
     with Import, Convention => C, External_Name => "euroradio_tick";

   function Ended (The_End : in out Handle; Told : out Deeds) return Status
     with Import, Convention => C, External_Name => "euroradio_ended";

   function Fault (The_End : in out Handle; Told : out Deeds) return Status
     with Import, Convention => C, External_Name => "euroradio_fault";

   function Stalled (The_End : in out Handle; Told : out Deeds) return Status
     with Import, Convention => C, External_Name => "euroradio_stalled";

   function Copy_Out (The_End : in out Handle; From : size_t; Into : in out Octets; Room : size_t) return size_t
     with Import, Convention => C, External_Name => "euroradio_out";

   function Copy_Accepted (The_End : in out Handle; Into : in out Octets; Room : size_t) return size_t
     with Import, Convention => C, External_Name => "euroradio_accepted";

   function Copy_Taken (The_End : in out Handle; Into : in out Octets; Room : size_t) return size_t
     with Import, Convention => C, External_Name => "euroradio_taken";

   function Deadline (The_End : in out Handle; Due : in out Moment) return Status
     with Import, Convention => C, External_Name => "euroradio_deadline";

   function Waiting (The_End : in out Handle) return size_t
     with Import, Convention => C, External_Name => "euroradio_waiting";

   function Unsent (The_End : in out Handle) return size_t
     with Import, Convention => C, External_Name => "euroradio_unsent";

   function Is_Released (The_End : in out Handle; Told : out Deeds) return Status
     with Import, Convention => C, External_Name => "euroradio_released";

   function Is_Connected (The_End : in out Handle; Peer : in out Unsigned_32) return Status
     with Import, Convention => C, External_Name => "euroradio_connected";

   function Copy_Reason (Reason, Sub : Unsigned_8; Into : in out Octets; Room : size_t) return size_t
     with Import, Convention => C, External_Name => "euroradio_reason";

   function Counted (The_End : in out Handle; Told : out Counts) return Status
     with Import, Convention => C, External_Name => "euroradio_counted";

private

   type Handle is limited record
      Private_Open : Unsigned_64    := 0;
      Private_End  : System.Address := System.Null_Address;
   end record with Convention => C;

end Euroradio;

--  bekwidas.h for Ada: copy this file into your project, and link with -lbekwidas. Bekwidas.h says what each function and member means.
with Interfaces.C; use Interfaces.C;
with Interfaces; use Interfaces;
with System;

package Bekwidas is
   --  Results
   Ok : constant int := 0;
   Nothing : constant int := 1;
   Unsent : constant int := 2;
   Unwise : constant int := 3;
   Err_Null : constant int := -1;
   Err_Length : constant int := -2;
   Err_Not_Open : constant int := -3;
   Err_Already_Open : constant int := -4;
   Err_Settings_Size : constant int := -5;
   Err_Bad_Settings : constant int := -6;
   Err_Rooms : constant int := -7;
   Err_No_Memory : constant int := -8;
   Err_Time : constant int := -9;
   Err_Take_First : constant int := -10;
   Err_Send_First : constant int := -11;
   Err_Lost : constant int := -12;
   Err_Too_Small : constant int := -13;
   Err_Not_Established : constant int := -14;
   Err_Full : constant int := -15;
   Err_Reserved_Kind : constant int := -16;
   Err_Too_Long : constant int := -17;
   Err_Not_Initialising : constant int := -18;
   Err_Processor : constant int := -20;
   Err_Copied : constant int := -21;
   --  States of the connection, as State returns them
   State_Closed : constant int := 0;
   State_Down : constant int := 1;
   State_Start : constant int := 2;
   State_Up : constant int := 3;
   State_Retr_Req : constant int := 4;
   State_Retr_Run : constant int := 5;
   --  Phases of the session, as Phase returns them
   Phase_Idle : constant int := 0;
   Phase_Checking : constant int := 1;
   Phase_Requesting : constant int := 2;
   Phase_Await_Check : constant int := 3;
   Phase_Await_Request : constant int := 4;
   Phase_Refused : constant int := 5;
   Phase_Initialising : constant int := 6;
   Phase_Established : constant int := 7;
   Phase_Ended : constant int := 8;
   --  What a note is about, and what was done with a datagram or a PDU
   Note_State : constant Unsigned_32 := 1;
   Note_Phase : constant Unsigned_32 := 2;
   Note_Datagram : constant Unsigned_32 := 3;
   Note_Pdu : constant Unsigned_32 := 4;
   Note_Take : constant Unsigned_32 := 5;
   Note_Left_Out : constant Unsigned_32 := 6;
   Done_Datagram_Passed : constant Integer_32 := 0;
   Done_Datagram_Deferred : constant Integer_32 := 1;
   Done_Datagram_Old : constant Integer_32 := 2;
   Done_Datagram_Repeated : constant Integer_32 := 3;
   Done_Datagram_Far : constant Integer_32 := 4;
   Done_Datagram_Full : constant Integer_32 := 5;
   Done_Datagram_Damaged : constant Integer_32 := 6;
   Done_Pdu_Taken : constant Integer_32 := 0;
   Done_Pdu_Gap : constant Integer_32 := 1;
   Done_Pdu_Left : constant Integer_32 := 2;
   Done_Pdu_Closed : constant Integer_32 := 3;
   Done_Pdu_Damaged : constant Integer_32 := 4;
   Done_Pdu_Stranger : constant Integer_32 := 5;
   Done_Pdu_Unopened : constant Integer_32 := 6;
   Done_Pdu_Far : constant Integer_32 := 7;
   Done_Pdu_Unrequested : constant Integer_32 := 8;
   Done_Pdu_Answered : constant Integer_32 := 9;
   Done_Pdu_Below : constant Integer_32 := 10;
   --  Who ended a connection
   By_Own : constant Unsigned_32 := 1;
   By_Peer : constant Unsigned_32 := 2;
   No_Version : constant Unsigned_32 := 256;
   Datagram_Max : constant := 1258;
   Payload_Max : constant := 357;
   Interlocking : constant Unsigned_32 := 1;
   Field_Element : constant Unsigned_32 := 2;

   type Octets is array (size_t range <>) of aliased Unsigned_8 with Convention => C;

   type Bek_End is limited record
      Station : System.Address := System.Null_Address;
      Is_Open : Unsigned_32 := 0;
      Place : System.Address := System.Null_Address;
   end record with Convention => C;

   type Settings is record
      Size, Side, Id, Peer_Id, First_Sn, Protocol, Code, Channels, N_Sendmax, N_Maxpacket, Q : Unsigned_32 := 0;
      T_Max, T_H, T_Seq, Mwa, Pdu_Limit, Telegram_Room, Datagram_Room, Version_Count, Checksum_Length : Unsigned_32 := 0;
      Versions : Octets (0 .. 3) := (others => 0);
      Checksum, Initial_Value : Octets (0 .. 15) := (others => 0);
      Name, Peer_Name : char_array (0 .. 23) := (others => nul);
   end record with Convention => C;

   Settings_Size : constant size_t := Settings'Size / 8;

   type Counts is record
      Telegrams, Datagrams, Unsent, Openings : Unsigned_64 := 0;
   end record with Convention => C;

   type Leaving is record
      Time : Unsigned_64 := 0;
      By, Reason, Detail, Version : Unsigned_32 := 0;
   end record with Convention => C;

   type Agreement is record
      Version, Checksum_Length : Unsigned_32 := 0;
      Checksum : Octets (0 .. 15) := (others => 0);
   end record with Convention => C;

   --  Last is 2 ** 64 - 1 before the first datagram.
   type Reception is record
      Received, Passed, Deferred, Old, Repeated, Far, Full, Damaged, Last : Unsigned_64 := 0;
   end record with Convention => C;
   type Receptions is array (1 .. 4) of Reception with Convention => C;

   type Channel_Fault_Counts is record
      Too_Short, Bad_Length, Reserve : Unsigned_64 := 0;
   end record with Convention => C;
   type All_Channel_Faults is array (1 .. 4) of Channel_Fault_Counts with Convention => C;

   type Part_Fault_Counts is record
      Too_Short, Bad_Length, Bad_Code, Bad_Type, Bad_Body : Unsigned_64 := 0;
   end record with Convention => C;

   type Statistics is record
      Channels : Receptions;
      Taken, Gaps, Damaged, Strangers, Unopened, Far, Unrequested, Answered, Below, Oldest, Longest_Wait : Unsigned_64 := 0;
      Units, Resent, Heartbeats, Requests, Answers, Confirmed, Expired_Deferrals : Unsigned_64 := 0;
      Channel_Faults : All_Channel_Faults;
      Part_Faults : Part_Fault_Counts;
   end record with Convention => C;

   type Note is record
      Count : Unsigned_64 := 0;
      What : Unsigned_32 := 0;
      Value : Integer_32 := 0;
      Number, Fault : Unsigned_32 := 0;
   end record with Convention => C;

   --  The sizes that the functions below are given
   Leaving_Size : constant size_t := Leaving'Size / 8;
   Agreement_Size : constant size_t := Agreement'Size / 8;
   Counts_Size : constant size_t := Counts'Size / 8;
   Statistics_Size : constant size_t := Statistics'Size / 8;
   Note_Size : constant size_t := Note'Size / 8;

   function Version return Unsigned_32 with Import, Convention => C, External_Name => "bek_version";
   function Init (S : access Settings; Size : size_t) return int with Import, Convention => C, External_Name => "bek_settings_init";
   function Fault (S : access constant Settings; Field : access Unsigned_32; Text : System.Address; Size : size_t) return int
     with Import, Convention => C, External_Name => "bek_settings_fault";
   function Rooms (S : access constant Settings; Telegrams, Datagrams : access Unsigned_32) return int
     with Import, Convention => C, External_Name => "bek_rooms";
   function Open (E : access Bek_End; S : access constant Settings; Now : Unsigned_64) return int
     with Import, Convention => C, External_Name => "bek_open";
   function Reopen (E : access Bek_End; First_Sn : Unsigned_32; Now : Unsigned_64) return int
     with Import, Convention => C, External_Name => "bek_reopen";
   procedure Free (E : access Bek_End) with Import, Convention => C, External_Name => "bek_free";
   function Arrive (E : access Bek_End; Channel : Unsigned_32; Buffer : System.Address; Length : size_t; Now : Unsigned_64) return int
     with Import, Convention => C, External_Name => "bek_arrive";
   function Tick (E : access Bek_End; Now : Unsigned_64) return int with Import, Convention => C, External_Name => "bek_tick";
   function Next_Deadline (E : access constant Bek_End; Deadline : access Unsigned_64) return int
     with Import, Convention => C, External_Name => "bek_next_deadline";
   function Put (E : access Bek_End; Kind : Unsigned_16; Payload : System.Address; Length : size_t; Now : Unsigned_64) return int
     with Import, Convention => C, External_Name => "bek_put";
   function Init_Done (E : access Bek_End; Now : Unsigned_64) return int with Import, Convention => C, External_Name => "bek_init_done";
   function Close (E : access Bek_End; Now : Unsigned_64) return int with Import, Convention => C, External_Name => "bek_close";
   function Take (E : access Bek_End; Kind : access Unsigned_16; Buffer : System.Address; Size : size_t; Length : access size_t) return int
     with Import, Convention => C, External_Name => "bek_take";
   function Next_Datagram (E : access Bek_End; Channel : access Unsigned_32; Buffer : System.Address; Size : size_t; Length : access size_t)
     return int with Import, Convention => C, External_Name => "bek_next_datagram";
   function State (E : access constant Bek_End) return int with Import, Convention => C, External_Name => "bek_state";
   function Phase (E : access constant Bek_End) return int with Import, Convention => C, External_Name => "bek_phase";
   function Is_Stale (E : access constant Bek_End) return int with Import, Convention => C, External_Name => "bek_is_stale";
   function Settled (E : access constant Bek_End) return int with Import, Convention => C, External_Name => "bek_settled";
   function Confirmed (E : access constant Bek_End; Count : access Unsigned_64) return int
     with Import, Convention => C, External_Name => "bek_confirmed";
   function Confirmed_Time (E : access constant Bek_End; Time : access Unsigned_64) return int
     with Import, Convention => C, External_Name => "bek_confirmed_time";
   function Departure (E : access constant Bek_End; L : access Leaving; Size : size_t) return int
     with Import, Convention => C, External_Name => "bek_departure";
   function Agreed (E : access constant Bek_End; A : access Agreement; Size : size_t) return int
     with Import, Convention => C, External_Name => "bek_agreed";
   function Leaving_Text (L : access constant Leaving; Text : System.Address; Size : size_t) return size_t
     with Import, Convention => C, External_Name => "bek_leaving_text";
   function Counts_Of (E : access constant Bek_End; C : access Counts; Size : size_t) return int
     with Import, Convention => C, External_Name => "bek_counts_of";
   function Statistics_Of (E : access constant Bek_End; S : access Statistics; Size : size_t) return int
     with Import, Convention => C, External_Name => "bek_statistics_of";
   function Totals_Of (E : access constant Bek_End; S : access Statistics; Size : size_t) return int
     with Import, Convention => C, External_Name => "bek_totals_of";
   function Hear_Notes (E : access Bek_End; On : int) return int with Import, Convention => C, External_Name => "bek_hear_notes";
   function Next_Note (E : access Bek_End; N : access Note; Size : size_t) return int with Import, Convention => C, External_Name => "bek_next_note";
   function Note_Text (N : access constant Note; Text : System.Address; Size : size_t) return size_t
     with Import, Convention => C, External_Name => "bek_note_text";
   function Version_Text (Text : System.Address; Size : size_t) return size_t
     with Import, Convention => C, External_Name => "bek_version_text";
   function Fault_Text (Result : int; Text : System.Address; Size : size_t) return size_t
     with Import, Convention => C, External_Name => "bek_fault_text";
end Bekwidas;
